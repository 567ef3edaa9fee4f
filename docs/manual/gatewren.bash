# Completes the words of gatewren for bash. tools/manual makes it of docs/manual/gatewren.txt.
_gatewren() {
    local word=${COMP_WORDS[COMP_CWORD]} words=
    COMPREPLY=()
    if [ "$COMP_CWORD" = 1 ]; then
        mapfile -t COMPREPLY < <(compgen -W 'listing profile rc rf rd rg rj cel sqrt ln ln_1p atan table swing steps drag decay pack unpack report join check version help build shared install uninstall --help --version' -- "$word")
        return
    fi
    case ${COMP_WORDS[1]} in
        install|uninstall)
            mapfile -t COMPREPLY < <(compgen -d -- "$word")
            return
            ;;
        listing) words='--progress' ;;
        table) words='--hex' ;;
        drag) words='--summary --progress' ;;
        report) words='--progress' ;;
        check) words='--progress' ;;
    esac
    case $word in
        -*) mapfile -t COMPREPLY < <(compgen -W "$words" -- "$word") ;;
        *) mapfile -t COMPREPLY < <(compgen -f -- "$word") ;;
    esac
}
complete -o filenames -F _gatewren gatewren ./gatewren
