# bash completion of sheet: verbs, the options of each, files. All are what the program itself says by --help, so that there is no second list to keep.

# The words of the line that is being completed; the program that it names, if that is one.
_sheet_says() {
  local program=${COMP_WORDS[0]}
  type -P -- "$program" >/dev/null || program=sheet
  "$program" "$@" --help 2>/dev/null
}

_sheet_verbs() { _sheet_says | sed -n 's/^  sheet \([a-z]*\) .*/\1/p' | sort -u; }
_sheet_options() { _sheet_says "$1" | awk '/^  --/ { for (i = 1; $i ~ /^--/; i++) { sub(/,$/, "", $i); print $i } }' | sort -u; }

# What the value of an option is called, as FILE; nothing where it has none. The file of --nodes is called as the list of --down is.
_sheet_value() { _sheet_says "$1" | awk -v option="$2" '$1 == option && /^  --[a-z-]+ [A-Z]/ { print $1 == "--nodes" ? "FILE" : $2; exit }'; }

_sheet() {
  local word=${COMP_WORDS[COMP_CWORD]} before=${COMP_WORDS[COMP_CWORD - 1]} verb=${COMP_WORDS[1]} value
  COMPREPLY=()
  if [ "$COMP_CWORD" -eq 1 ]; then
    mapfile -t COMPREPLY < <(compgen -W "$(_sheet_verbs) --help --version" -- "$word")
    return
  fi
  # --plan=FILE comes as three words
  if [ "$word" = = ]; then word=; elif [ "$before" = = ]; then before=${COMP_WORDS[COMP_CWORD - 2]}; fi
  value=$(_sheet_value "$verb" "$before")
  case $value:$word in
    :-*) mapfile -t COMPREPLY < <(compgen -W "$(_sheet_options "$verb")" -- "$word") ;;
    :* | FILE:* | FOLDER:* | PLAN:* | BOOK:*)
      mapfile -t COMPREPLY < <(compgen -f -- "$word")
      type compopt >/dev/null 2>&1 && compopt -o filenames 2>/dev/null
      ;;
  esac
}

complete -F _sheet sheet
