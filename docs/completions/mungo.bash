# tools/describe makes this of what `./mungo --help` tells; it isn't written by hand.
_mungo() {
    local word=${COMP_WORDS[COMP_CWORD]} before=${COMP_WORDS[COMP_CWORD - 1]} options=
    COMPREPLY=()
    if [ "$COMP_CWORD" -eq 1 ]; then
        mapfile -t COMPREPLY < <(compgen -W 'translate client project conform refine check show compile run fit exec verify load help --help --version --explain' -- "$word")
        return
    fi
    case $before in
        --explain) mapfile -t COMPREPLY < <(compgen -W 'ArgsMayMove Arity BadAttribute BadByte BadDescriptor BadEscape BadIndex BadLabel BadLine BadMagic BadNumber BadSwitch BadTag BadText BranchStart CodeTooLong DuplicateClass DuplicateLabel DuplicateLocal DuplicateMember DuplicateMethod DuplicateName DuplicateProtocol DuplicateRec DuplicateState FieldNeedsValue FieldOpenAtEnd InstanceInPlain JumpOutside LabelsDiffer LeftOpen MadeElsewhere MaybeNull MissingMethod MissingReturn MixedChoice NameClash NoCode NoMain NoProtocol NotAccepted NotLast NotMade NotMergeable NotOffered OpenComment OpenText OtherProtocol Overwritten OwnSession PayloadCount PeerIsSelf PoolFull ReservedEnd ReservedLabel RolesDiffer SameLabel SameRole SelfCall SharedMain Short SignatureDiffers StartsWithDo Stranger Syntax TextTooLong ThisAsValue TooLarge TooManyLocals TooManyStates TrailingBytes TypeMismatch Unguarded UnknownClass UnknownMember UnknownName UnknownOpcode UnknownProtocol UnknownRec UnknownRole UnknownState UnknownType UnknownTypestate Unplayed Unprojected Unreachable Unsupported Unverified UseMoved Version' -- "$word"); return ;;
        --out) mapfile -t COMPREPLY < <(compgen -d -- "$word"); return ;;
    esac
    case ${COMP_WORDS[1]} in
        translate) options='--package --out' ;;
        client) options='--package --out' ;;
        project) options='--out' ;;
        conform) options='' ;;
        refine) options='' ;;
        check) options='--all' ;;
        show) options='' ;;
        compile) options='--out' ;;
        run) options='--steps --order --trace --out --role --main' ;;
        fit) options='--role' ;;
        exec) options='--steps --order --trace --role --main' ;;
        verify) options='' ;;
        load) options='' ;;
    esac
    case $word in
        -*) mapfile -t COMPREPLY < <(compgen -W "$options" -- "$word") ;;
        *) mapfile -t COMPREPLY < <(compgen -f -- "$word") ;;
    esac
}
complete -o filenames -F _mungo mungo
