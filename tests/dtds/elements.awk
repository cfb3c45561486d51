# Cuts the element declarations out of a DTD: each that stands whole outside comments, in whatever else, and names no entity (%), as it is,
# on lines of its own. Into the file `counts` goes how many these are, and how many name an entity and are left out.
BEGIN { RS = "<" }
comment { comment = !index($0, "-->"); next }
/^!--/ { comment = !index(substr($0, 4), "-->"); next }
/^!ELEMENT/ && index($0, ">") {
    declaration = substr($0, 1, index($0, ">"))
    if (index(declaration, "%")) {
        left++
    } else {
        cut++
        print "<" declaration
    }
}
END { print cut + 0, left + 0 > counts }
