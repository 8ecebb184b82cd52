"""The live page of a traffic service: the state of a stream, and the server that shows it in browsers."""
