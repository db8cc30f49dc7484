# Completes the words of wlim in bash.
_wlim() {
	local word=${COMP_WORDS[COMP_CWORD]} before=${COMP_WORDS[COMP_CWORD - 1]}
	local commands="audit explain gen migrate replay replay-acts replay-seats serve trial trial-threads"
	if [ "$COMP_CWORD" = 1 ]; then
		COMPREPLY=($(compgen -W "$commands" -- "$word"))
		return
	fi
	case ${COMP_WORDS[1]} in
	explain)
		COMPREPLY=($(compgen -W "--bad-only" -- "$word"))
		;;
	gen)
		[ "$COMP_CWORD" != 3 ] || COMPREPLY=($(compgen -W "text" -- "$word"))
		;;
	serve)
		case $before in
		--app | --method | --shell)
			COMPREPLY=($(compgen -f -- "$word"))
			;;
		--order | --entries | --store | --weight | --wait) ;;
		*)
			COMPREPLY=($(compgen -W "--app --method --shell --order --entries --store --weight --wait" -- "$word"))
			;;
		esac
		;;
	esac
}
complete -F _wlim wlim
