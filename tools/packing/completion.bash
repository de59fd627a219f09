# Completion of {name} for bash: its options, the words of an option, and files.
_{name}() {{
    local word=${{COMP_WORDS[COMP_CWORD]}}
    case ${{COMP_WORDS[COMP_CWORD - 1]}} in
{cases}    *)
        [[ $word != -* ]] || mapfile -t COMPREPLY < <(compgen -W '{options}' -- "$word")
        ;;
    esac
}}
complete -o default -F _{name} {name}
