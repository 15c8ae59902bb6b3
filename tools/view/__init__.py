"""The report of `sweet analyse` on the source, as a page of HTML or as a text: docs/view.md says what it shows.

Nothing here is proved. The numbers are those of the report; which tokens of a file of C they belong to is told by
the rules of docs/lowering.md, held item by item against what `sweet lower` prints, and node by node against the
report.

    c_tokens, c_cursor, c_tree, c_expressions, c_statements, c_units   the reader of C
    items, c_lowering                                                  items with the tokens that they come from
    alf_tree, alf_file, comparison, source                             texts of ALF, and the comparison with them
    graph, report, path_rows, dual_simplex                             nodes, the report's lines, a best point of it
    model, lines, loops, alarms, exclusions, row_order                 what is said of lines, loops and nodes
    program, refusals, name_places, given_inputs, file_view            the program's answers, and all that is shown
    statement_marks, origin                                            the lines of what `sweet-c` wrote a text from
    html_page, source_pane, panel, graph_picture, terminal             the two forms; markup and part_row serve them
    visible                                                            what nobody sees, as escapes
    given_file, page_file, command                                     what is read and written, and the words
"""
