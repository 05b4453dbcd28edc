/* C11 7.7: the language has no floating point, and nothing is defined. */
