# Completion of the words of memplan, for bash: source it, or put it where bash-completion looks.
# Made by tools/make_help.py of tools/commands.py.
_memplan() {
    local word=${COMP_WORDS[COMP_CWORD]} before=${COMP_WORDS[COMP_CWORD - 1]} words= option
    COMPREPLY=()
    # bash cuts `--name=value` into three words
    [ "$before" != = ] || before=${COMP_WORDS[COMP_CWORD - 2]}
    [ "$word" != = ] || word=
    case ${COMP_WORDS[1]}$before in
        columns--print) words="text perm" ;;
        *--ordering) words="natural mindeg" ;;
        *--shape) words="triangle square" ;;
        *--inplace) words="no yes" ;;
        *--print) words="text json" ;;
        *--fewest) words="no yes" ;;
        *--kind) words="tree workflow grid" ;;
        *--tree | *--workflow | *--matrix | *--perm | *--iperm | *--graph | *--order | *--plan | *--fences | *--priority)
            compopt -o filenames 2>/dev/null
            mapfile -t COMPREPLY < <(compgen -f -- "$word")
            return
            ;;
        *--amalgamate | *--effort | *--workers | *--bound | *--seed | *--tasks | *--rows | *--cols) return ;;
        *)
            case ${COMP_WORDS[1]} in
                plan) words="--tree --workflow --matrix --perm --iperm --ordering --shape --amalgamate --inplace --graph --order --effort --print" ;;
                check) words="--tree --workflow --matrix --perm --iperm --ordering --shape --amalgamate --inplace --graph --plan --workers --fences" ;;
                replay) words="--tree --workflow --matrix --perm --iperm --ordering --shape --amalgamate --inplace --graph --order --plan" ;;
                post) words="--tree --matrix --perm --iperm --ordering --shape --amalgamate --inplace" ;;
                tree) words="--matrix --perm --iperm --ordering --shape --amalgamate --inplace" ;;
                columns) words="--matrix --perm --iperm --ordering --shape --amalgamate --inplace --order --plan --print" ;;
                fronts) words="--matrix --perm --iperm --ordering --bound --workers" ;;
                simulate) words="--tree --workflow --matrix --perm --iperm --ordering --shape --amalgamate --inplace --graph --order --plan --bound --workers --priority" ;;
                fence) words="--tree --workflow --matrix --perm --iperm --ordering --shape --amalgamate --inplace --graph --order --plan --bound --workers --fewest" ;;
                spill) words="--tree --workflow --matrix --perm --iperm --ordering --shape --amalgamate --inplace --graph --order --plan --bound" ;;
                segments) words="--tree --workflow --matrix --perm --iperm --ordering --shape --amalgamate --inplace" ;;
                reduce) words="--graph --order --plan" ;;
                bound) words="--graph --order --effort" ;;
                upgrade) words="--tree --workflow --graph --plan --priority" ;;
                demo) words="--kind --seed --tasks --rows --cols" ;;
            esac
            [ "$COMP_CWORD" -gt 1 ] || words="plan check replay post tree columns fronts simulate fence spill segments reduce bound upgrade demo"
            # each option once
            for option in "${COMP_WORDS[@]:2}"; do
                [ "$option" = "$word" ] || words=" $words " words=${words/ $option / }
            done
            ;;
    esac
    mapfile -t COMPREPLY < <(compgen -W "$words" -- "$word")
}
complete -F _memplan memplan ./memplan
