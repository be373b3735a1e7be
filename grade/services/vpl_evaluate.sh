#!/bin/bash
# VPL runs this, and then the vpl_execution that it makes. What follows the last line is from grade/pack: the program, the grader and the cases.
mkdir -p .grading && sed '1,/^exit$/d' "$0" | base64 -d | tar -xz -C .grading || exit
cat >vpl_execution <<'END'
#!/bin/bash
[ ! -f vpl_environment.sh ] || . ./vpl_environment.sh
export VPL_GRADEMIN VPL_GRADEMAX MIXREV=$PWD/.grading/mixrev
exec .grading/grade/submitted .grading/cases . --vpl --id="$MOODLE_USER_EMAIL" --id="$MOODLE_USER_ID"
END
chmod +x vpl_execution
exit
