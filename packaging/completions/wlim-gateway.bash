# Completes the options that wlim-gateway's own help has, in bash.
_wlim_gateway() {
	local word=${COMP_WORDS[COMP_CWORD]}
	case $word in
	-*)
		COMPREPLY=($(compgen -W "$("$1" --help 2> /dev/null | grep -o '^  --[a-z-]*')" -- "$word"))
		;;
	*)
		COMPREPLY=($(compgen -f -- "$word"))
		;;
	esac
}
complete -F _wlim_gateway wlim-gateway
