"""A companion of skewcheck: it runs the program and puts what it answers in words, tables and pictures.

It decides nothing itself: each verdict is the program's, and each claim beside it is one more run of it.
"""
