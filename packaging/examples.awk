# What a page shows, in mdoc or man: what is literal in its section EXAMPLES. Of a page of functions that is C. With
# `commands` set it is also each line alone.
/^\.S[hH] / { shown = $2 == "EXAMPLES" }
/^\.(Ed|fi)/ { literal = 0 }
commands && shown && sub(/^\.Dl /, "") || literal && !/^\.PP/ {
	gsub(/\\e/, "\\")
	gsub(/\\-/, "-")
	print
}
/^\.(Bd -literal|nf)/ { literal = shown }
