"""The commands, one module each: arguments, and calls of the layers below."""
