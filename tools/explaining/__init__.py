"""The parts of `tools/explain`: each tells one sort of answer, in lines of text."""
