"""Tests of the package: answers beside known ones, kinds of data, texts, threads, and what is refused."""
