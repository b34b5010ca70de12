"""The steps of groot-gate and groot-changed: their words, the programs that they run, the files that they write, what they say."""
