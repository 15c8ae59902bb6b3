"""A second checker of certified reports, written from the pages of docs/: docs/recheck.md says what it is for.

    unread                                     what is told of a text that is not read, and an answer with its status
    tokens, tree, alf_text, checks, program    texts of ALF, and programs that pass the checks
    words                                      the operators on words
    graph, scopes                              nodes, edges, and the scopes around each node
    given                                      files of inputs and of costs
    strides, transfer                          sets of words, and what an operator gives of them
    values, memory                             values with pointers, and what is known of each frame
    expressions, arms, step                    what an expression, a switch and a block make of a memory
    recorders, pool                            counts and pairs of runs; the events of a certificate
    rows                                       the rows that the facts make, and the multipliers
    report, objections                         the text of a report, and the first thing that speaks against it
    command                                    the words, the files, and the answer
"""
