# Completion of bt878 for bash: commands, and files by their endings.

_bt878() {
    COMPREPLY=()
    local word=${COMP_WORDS[COMP_CWORD]} command=${COMP_WORDS[1]} kinds
    if [ "$COMP_CWORD" -eq 1 ]; then
        local commands='list assemble verify check compile make run trace capture damage ring chain --help --version'
        mapfile -t COMPREPLY < <(compgen -W "$commands" -- "$word")
        return
    fi
    case $command in
        list | verify) kinds='brp' ;;
        assemble) kinds='lst brp' ;;
        check) kinds='brp toml' ;;
        compile) kinds='toml brp' ;;
        make) kinds='toml - - bfs' ;;
        run) kinds='brp bfs bmi' ;;
        trace) kinds='brp bfs' ;;
        capture) kinds='toml bfs brp bmi' ;;
        damage) kinds='toml bfs' ;;
        ring) kinds='toml bfs brp bmi' ;;
        chain) kinds='toml toml bfs bmi' ;;
        *) return ;;
    esac
    local ending
    ending=$(echo "$kinds" | cut -d ' ' -s -f $((COMP_CWORD - 1)))
    [ -n "$ending" ] || [ "$COMP_CWORD" -gt 2 ] || ending=$kinds
    case $ending in
        '' | -) ;;
        *) mapfile -t COMPREPLY < <(compgen -f -X "!*.$ending" -- "$word"; compgen -d -S / -- "$word") ;;
    esac
}

complete -o nospace -o filenames -F _bt878 bt878
