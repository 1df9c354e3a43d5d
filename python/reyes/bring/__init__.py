"""Brings scenes and shaders as people have them into the words of the renderer's profile, and tells what that changed."""
