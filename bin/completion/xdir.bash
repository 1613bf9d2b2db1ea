# Completes the words of xdir, also of bin/xdir, in bash: source this file, for example in ~/.bashrc.

# what the word at the cursor may be: the words of COMPREPLY, or the names of files, as behind `>` too
_xdir() {
    local current=${COMP_WORDS[COMP_CWORD]} word words=() summary=--summary offered=
    for word in "${COMP_WORDS[@]:1:COMP_CWORD-1}"; do
        if [ "$word" = --summary ]; then summary=; else words+=("$word"); fi
    done
    COMPREPLY=()
    case ${words[0]-}/${#words[@]}/$current in
        /0/*) offered="run check tree gen show --help --version" ;;
        run/[123]/-*) offered=$summary ;;
        gen/1/*) ;;
        gen/2/*) offered="world script" ;;
        *) compopt -o default ;;
    esac
    [ -z "$offered" ] || mapfile -t COMPREPLY < <(compgen -W "$offered" -- "$current")
}
complete -F _xdir xdir
