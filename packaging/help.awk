# Lays out for the manual page what the program tells of itself: an option is a line that is indented by two, what is told of it
# follows, indented by six, and a blank line ends the options.
BEGIN { print ".nf" }
/^  \\-/ {
    if (part == 0) print ".fi\n.SH OPTIONS"
    part = 1
    print ".TP\n.B " substr($0, 3)
    next
}
part == 1 && /^$/ { part = 2; print ".SH REMARKS\n.nf"; next }
part == 1 { sub(/^ +/, "") }
{ print }
END { print ".fi" }
