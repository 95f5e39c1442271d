# Completion of ubi_tool for bash. Made by check/gate/words.py.
_ubi_tool() {
    local word=${COMP_WORDS[COMP_CWORD]} words=
    COMPREPLY=()
    if [ "$COMP_CWORD" -eq 1 ]; then
        mapfile -t COMPREPLY < <(compgen -W 'geometry list check show map extract unpack compose build normalise same diff change rename update --help --version' -- "$word")
        return
    fi
    case ${COMP_WORDS[1]} in
        geometry) words='--start --length --format --help' ;;
        list) words='--start --length --oob --bad --format --peb --page --vid --data --pebs --help' ;;
        check) words='--start --length --oob --bad --format --peb --page --vid --data --pebs --help' ;;
        show) words='--start --length --oob --bad --block --peb --page --vid --data --pebs --help' ;;
        map) words='--start --length --oob --bad --out --peb --page --vid --data --pebs --help' ;;
        extract) words='--start --length --oob --bad --out --id --name --peb --page --vid --data --pebs --help' ;;
        unpack) words='--start --length --oob --bad --out --peb --page --vid --data --pebs --help' ;;
        compose) words='--out --spares --seq --peb --page --vid --data --pebs --help' ;;
        build) words='--out --spares --seq --peb --page --vid --data --pebs --help' ;;
        normalise) words='--start --length --oob --bad --out --peb --page --vid --data --pebs --help' ;;
        same) words='--start --length --oob --bad --format --peb --page --vid --data --pebs --help' ;;
        diff) words='--start --length --oob --bad --format --peb --page --vid --data --pebs --help' ;;
        change) words='--start --length --oob --bad --out --id --lnum --from --stop --blank --pages --peb --page --vid --data --pebs --help' ;;
        rename) words='--start --length --oob --bad --out --id --name --stop --blank --pages --peb --page --vid --data --pebs --help' ;;
        update) words='--start --length --oob --bad --out --help' ;;
    esac
    case $word in
        -*) mapfile -t COMPREPLY < <(compgen -W "$words" -- "$word") ;;
        *) mapfile -t COMPREPLY < <(compgen -f -- "$word") ;;
    esac
}
complete -o filenames -F _ubi_tool ubi_tool ./ubi_tool
