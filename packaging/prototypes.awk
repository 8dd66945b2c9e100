# The prototypes that pages of functions have, in mdoc, as C.
/^\.Sh / { shown = $2 == "SYNOPSIS" }
!shown { next }
/^\.Ft / { type = substr($0, 5) }
/^\.Fo / { words = "" }
/^\.Fa / { words = words " " substr($0, 5) }
/^\.Fn / { words = substr($0, index($0, $3)) }
/^\.F[on] / { name = $2 }
/^\.F(c|n )/ {
	gsub(/" "/, ", ", words)
	gsub(/"/, "", words)
	print type, name "(" words ");"
}
