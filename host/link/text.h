/* The built-in text. */
#ifndef TEXT_H
#define TEXT_H

static const char built_in_text[] = "A group is some slots at one end and as many ports at the other, with a line from each slot to a port.\n"
                                    "No line is as long as another, and none waits for the rest.\n"
                                    "The sender deals the client's bytes round the members, one each in turn, and begins again with the first.\n"
                                    "Each frame says in a few bits where it stands in the count; sixteen of them make an epoch and one packet.\n"
                                    "The packet of one epoch says who carries bytes in the next.\n"
                                    "The receiver keeps each frame until the slowest line has brought its own, and then gathers in the same order.\n"
                                    "What it is sure of it says is sure. What it cannot be sure of it says is doubtful, and what must be wrong it holds.\n"
                                    "It answers which members it hears well, and the sender adds, sets aside and takes back by that answer alone.\n"
                                    "So a line may fail and come back, and the bytes go on along the others.\n";

#endif
