# Writes of a report a line for each item and each tree, with the item's number before it, and without the number of classes.
$1 == "item" { item = $2; if ($3 == "classes") print item, $5, $6; else print item, $3, $4; next }
{ print item, $0 }
