"""What ./value does with its files: they are read and looked at, then valued by a proved program, then told as text, JSON or CSV."""
