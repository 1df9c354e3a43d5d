"""Shadows by pictures of depths that the renderer draws from the lights, looked up by the surfaces (docs/SHADOWS.md)."""
