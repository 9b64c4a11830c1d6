"""Requests and answers of the recorder, for people: what the tools share."""
