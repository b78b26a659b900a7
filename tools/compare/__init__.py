"""Parts of `tools/compare_outputs.py`."""
