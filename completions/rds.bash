# Completion of rds for bash: source it, or install it as rds below bash-completion's folder completions.

# What each command takes; tests/test_package.py compares it with the program's help.
_rds_options() {
  local part='--bits --gaps' input='--hex --bits --gaps' rules='--burst --reach --loss --share --of' crew='--workers --progress'
  case $1 in
    scan) echo "$input $crew --help" ;;
    list | totals) echo "$input $rules --pieces $crew --soft --margin --help" ;;
    follow) echo "$part $rules --workers --soft --margin --help" ;;
    encode) echo '--hex --help' ;;
    '') echo 'scan list follow totals encode help --help --version' ;;
  esac
}

# The numbers of an option that takes few of them.
_rds_values() {
  case $1 in
    --burst) echo 0 1 2 3 4 5 ;;
    --reach) echo 1 2 3 4 5 6 7 8 ;;
    --workers) echo 1 2 4 8 16 ;;
  esac
}

_rds() {
  local word=${COMP_WORDS[COMP_CWORD]} before=${COMP_WORDS[COMP_CWORD - 1]} command='' offered
  ((COMP_CWORD > 1)) && command=${COMP_WORDS[1]}
  case $before in
    --bits | --gaps | --burst | --reach | --loss | --share | --of | --pieces | --workers | --margin) offered=$(_rds_values "$before") ;;
    help) offered='scan list follow totals encode' ;;
    *) offered=$(_rds_options "$command") ;;
  esac
  mapfile -t COMPREPLY < <(compgen -W "$offered" -- "$word")
}

# A file name follows < or >: bash completes it by itself.
complete -F _rds rds
