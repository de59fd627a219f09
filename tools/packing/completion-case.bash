    {option})
        mapfile -t COMPREPLY < <(compgen -W '{words}' -- "$word")
        ;;
