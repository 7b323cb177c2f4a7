"""The parts of `tools/memory`: the documents, and the two ways in which memory is wanting."""
