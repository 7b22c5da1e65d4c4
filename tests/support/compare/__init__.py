"""How tests/model compares the program with the model: `choice` chooses requests, `texts` and `odd` write them as
lines and messages, `runs` runs both and cuts a difference down, `breaks` makes bugs in the model."""
