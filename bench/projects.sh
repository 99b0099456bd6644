# shellcheck shell=bash
# What the scripts that measure commands on projects have in common: projects that grow with the number of features (`make FAMILY N` and `large`
# write one to the current folder), and a table of what a command takes on them (`table`). Sourced by `check.sh` and `rename.sh`, which set
# `program` and `failed` and define `measured FAMILY`, which measures one run.

readonly FAMILIES=(uses declarations types two-types three-types members parameters initialisers functions units blocks constraints)

# A project file with so many features, the given constraints, and the unit `m.c`.
project() {
  awk -v n="$1" -v chain="${2-}" 'BEGIN {
    printf "features = ["
    for (i = 0; i < n; i++) printf "%s\"F%d\"", (i ? ", " : ""), i
    print "]"
    if (chain != "") {
      printf "constraints = ["
      for (i = 0; i + 1 < n; i += 2) printf "%s\"F%d -> F%d\"", (i ? ", " : ""), i, i + 1
      print "]"
    }
    print "[[unit]]\nfile = \"m.c\""
  }'
}

# The unit of a family, for so many features.
unit() {
  awk -v family="$1" -v n="$2" '
    function under(i, text) { print "#ifdef F" i; print text; print "#endif" }
    function either(i, yes, no) { print "#ifdef F" i; print yes; print "#else"; print no; print "#endif" }
    function begin() { print "int main(void) {" }
    function finish() { print "return 0;"; print "}" }
    function uses(  i) { print "int x;"; begin(); for (i = 0; i < n; i++) under(i, "x = " i ";"); finish() }
    function declarations(  i) {
      for (i = 0; i < n; i++) under(i, "int x" i ";")
      begin(); for (i = 0; i < n; i++) under(i, "x" i " = " i ";"); finish()
    }
    function types(  i) {
      for (i = 0; i < n; i++) { print (i ? "#elif" : "#if") " defined(F" i ")"; print "int x[" i + 1 "];" }
      print "#else"; print "int x[1000];"; print "#endif"
      begin(); for (i = 0; i < n; i++) print "x[0] = " i ";"; finish()
    }
    function sum(  i) { begin(); print "long total;"; printf "total = x0"; for (i = 1; i < n; i++) printf " + x%d", i; print ";"; finish() }
    function two_types(  i) { for (i = 0; i < n; i++) either(i, "int x" i ";", "long x" i ";"); sum() }
    function three_types(  i) {
      n = n / 2
      for (i = 0; i < n; i++) {
        print "#if defined(F" 2 * i ")"; print "int x" i ";"; print "#elif defined(F" 2 * i + 1 ")"; print "long x" i ";"
        print "#else"; print "unsigned int x" i ";"; print "#endif"
      }
      sum()
    }
    function members(  i) {
      print "struct s {"; print "int first;"; for (i = 0; i < n; i++) under(i, "int m" i ";"); print "};"
      print "struct s v;"; begin(); for (i = 0; i < n; i++) under(i, "v.m" i " = " i ";"); finish()
    }
    function listed(  i) { for (i = 0; i < n; i++) under(i, ", int p" i) }
    function parameters(  i) {
      print "int f(int p"; listed(); print ");"; begin(); print "f(0"; for (i = 0; i < n; i++) under(i, ", " i); print ");"; finish()
    }
    function initialisers(  i) {
      print "struct s {"; print "int first;"; for (i = 0; i < n; i++) under(i, "int m" i ";"); print "};"
      begin(); print "struct s v = { 1"; for (i = 0; i < n; i++) under(i, ", " i); print "};"; finish()
    }
    function functions(  i) {
      for (i = 0; i < n; i++) either(i, "int f" i "(int v) { return v + " i "; }", "int f" i "(int v) { return v; }")
      begin(); print "int t = 0;"; for (i = 0; i < n; i++) print "t = f" i "(t);"; finish()
    }
    function units(  i) {
      for (i = 0; i < n; i++) under(i, "int g" i "(void);")
      begin(); for (i = 0; i < n; i++) under(i, "g" i "();"); finish()
    }
    function blocks(  i) {
      begin(); print "int x = 0;"
      for (i = 0; i < n; i++) { print "{"; under(i, "long x = " i ";"); print "x = x + 1;" }
      for (i = 0; i < n; i++) print "}"
      finish()
    }
    BEGIN {
      if (family == "uses" || family == "constraints") uses()
      else if (family == "declarations") declarations()
      else if (family == "types") types()
      else if (family == "two-types") two_types()
      else if (family == "three-types") three_types()
      else if (family == "members") members()
      else if (family == "parameters") parameters()
      else if (family == "initialisers") initialisers()
      else if (family == "functions") functions()
      else if (family == "units") units()
      else if (family == "blocks") blocks()
    }' </dev/null
}

# The files of a family in the current folder.
make() {
  local family=$1 n=$2 i
  rm -f ./*.c p.toml
  unit "$family" "$n" >m.c
  case $family in
    constraints) project "$n" chain >p.toml ;;
    *) project "$n" >p.toml ;;
  esac
  case $family in
    parameters)
      printf '[[unit]]\nfile = "f.c"\n' >>p.toml
      { echo 'int f(int p'; for ((i = 0; i < n; i++)); do printf '#ifdef F%d\n, int p%d\n#endif\n' "$i" "$i"; done; echo ') { return p; }'; } >f.c
      ;;
    units)
      for ((i = 0; i < n; i++)); do
        printf '[[unit]]\nfile = "u%d.c"\nwhen = "F%d"\n' "$i" "$i" >>p.toml
        printf 'int g%d(void) { return %d; }\n' "$i" "$i" >"u$i.c"
      done
      ;;
  esac
}

# 20 units of 100 functions each, of which each has a statement under one of 64 features and is called from `main`.
large() {
  rm -f ./*.c p.toml
  awk 'BEGIN {
    printf "features = ["
    for (i = 0; i < 64; i++) printf "%s\"F%d\"", (i ? ", " : ""), i
    print "]\nheaders = [\"all.h\"]"
    for (u = 0; u < 20; u++) print "[[unit]]\nfile = \"u" u ".c\""
    print "[[unit]]\nfile = \"m.c\""
  }' >p.toml
  awk 'BEGIN { print "extern int shared;"; for (f = 0; f < 2000; f++) print "int f" f "(int v);" }' >all.h
  for ((u = 0; u < 20; u++)); do
    awk -v u="$u" 'BEGIN {
      print "#include \"all.h\""
      for (f = 100 * u; f < 100 * u + 100; f++) {
        print "int f" f "(int v) {"; print "#ifdef F" f % 64; print "shared = shared + " f % 10 ";"; print "#endif"; print "return v + " f % 7 ";"; print "}"
      }
    }' >"u$u.c"
  done
  awk 'BEGIN {
    print "#include \"all.h\"\nint shared;\nint main(void) {\nint t = 0;"
    for (f = 0; f < 2000; f++) print "t = f" f "(t);"
    print "return 0;\n}"
  }' >m.c
}

# A table of the times of the families for 8, 16, 32 and 64 features, with the peak for 64. Each answer must begin with the wanted word. `failed` becomes 1
# where one doesn't, and where the time of a family grows by more than 3 from 32 to 64 features; the families in `exempt` may grow by `more`. A time below
# 0.05 s isn't compared.
#   table WANTED MORE EXEMPT FAMILY..
table() {
  local wanted=$1 more=$2 exempt=$3 family n row before seconds peak most
  shift 3
  printf '| Family | 8 | 16 | 32 | 64 features | peak for 64 |\n|---|---|---|---|---|---|\n'
  for family in "$@"; do
    row="| $family |" seconds= peak=
    for n in 8 16 32 64; do
      make "$family" "$n"
      before=$seconds
      read -r seconds peak < <(measured "$family")
      if [ ! -s output ]; then
        row+=' over 60 s |'
        failed=1
        break
      fi
      row+=$(printf ' %.2f s |' "$seconds")
      case $(cat output) in "$wanted"*) ;; *) failed=1; printf '\n%s for %d: %s\n\n' "$family" "$n" "$(cat output)" ;; esac
    done
    printf '%s %d MiB |\n' "$row" $((peak / 1024))
    most=3
    case " $exempt " in *" $family "*) most=$more ;; esac
    awk -v a="$before" -v b="$seconds" -v most="$most" 'BEGIN { exit b >= 0.05 && b > most * (a > 0.01 ? a : 0.01) }' ||
      { failed=1; printf '\n%s grows by more than %d from 32 to 64 features.\n\n' "$family" "$most"; }
  done
}
