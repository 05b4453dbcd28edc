/* C11 7.12: the language has no floating point, and nothing is declared. */
