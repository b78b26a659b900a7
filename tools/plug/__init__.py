"""Parts of `tools/plug_components.py`."""
