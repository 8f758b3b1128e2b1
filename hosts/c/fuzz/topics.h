/* What is done with each input, in this order. Each topic is a file beside this one, and the function fuzz_NAME in it. */
TOPIC(value)
TOPIC(save)
TOPIC(equity)
TOPIC(rolling)
TOPIC(months)
