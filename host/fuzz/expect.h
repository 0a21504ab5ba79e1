/* What the engine promises. */
#ifndef EXPECT_H
#define EXPECT_H

/* Ends the process by abort, which libFuzzer reports with the data, unless a promise holds. */
void expect(int holds, const char *words);

#endif
