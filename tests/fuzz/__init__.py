"""Changed and random cases, what sfq may do with them, and a model of its joins."""
