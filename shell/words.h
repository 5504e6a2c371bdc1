/* A typed line, word by word. */
#ifndef WORDS_H
#define WORDS_H

/*
 * The words of a line, which blanks part; quotes of either kind, or a backslash, keep a blank in a word. They lie in the line, which is changed.
 * How many there are, at most half the line's length and one; -1 if a quote is not closed.
 */
int words_split(char *line, char **words);

#endif
