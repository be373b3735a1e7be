# Compares what comes in with the file `wanted`, each line byte by byte. The first line that differs is said on standard error and ends it; the status is
# 1 if one differs or is missing.
(getline line <wanted) <= 0 { failed = 1; print "line " NR " is more than is wanted: " $0 >"/dev/stderr"; exit 1 }
$0 "" != line "" { failed = 1; print "line " NR " is not what is wanted: " $0 >"/dev/stderr"; exit 1 }
END { if (failed || (getline line <wanted) > 0) exit 1 }
