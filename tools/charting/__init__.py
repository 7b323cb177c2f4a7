"""The parts of `tools/chart`: what a chart shows, where it stands, and how it is drawn."""
