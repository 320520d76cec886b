# tools/describe makes this of what `./mungo --help` tells; it isn't written by hand.
complete -c mungo -f -n __fish_use_subcommand -a translate -d 'writes the typestates and Java classes of the local protocols F.., the classes in the package P'
complete -c mungo -n '__fish_seen_subcommand_from translate' -l package -x
complete -c mungo -n '__fish_seen_subcommand_from translate' -l out -x -a '(__fish_complete_directories)'
complete -c mungo -f -n __fish_use_subcommand -a client -d 'writes for each of them a Java class whose main plays all of it, to begin with'
complete -c mungo -n '__fish_seen_subcommand_from client' -l package -x
complete -c mungo -n '__fish_seen_subcommand_from client' -l out -x -a '(__fish_complete_directories)'
complete -c mungo -f -n __fish_use_subcommand -a project -d 'writes the local protocols of the roles of the global protocol F'
complete -c mungo -n '__fish_seen_subcommand_from project' -l out -x -a '(__fish_complete_directories)'
complete -c mungo -f -n __fish_use_subcommand -a conform -d 'tells whether the calls in the file CALLS follow the local protocol F'
complete -c mungo -f -n __fish_use_subcommand -a refine -d 'tells whether the typestate in the file A stands for that in B'
complete -c mungo -f -n __fish_use_subcommand -a check -d 'tells whether the sources, typestates and local protocols F.. keep to the rules of usage'
complete -c mungo -n '__fish_seen_subcommand_from check' -l all
complete -c mungo -f -n __fish_use_subcommand -a show -d 'tells what each variable of them may be where a method is called on it'
complete -c mungo -f -n __fish_use_subcommand -a compile -d 'writes the class files of a program that does'
complete -c mungo -n '__fish_seen_subcommand_from compile' -l out -x -a '(__fish_complete_directories)'
complete -c mungo -f -n __fish_use_subcommand -a run -d 'compiles it, and runs its roles in turns, each R from the main of the class C'
complete -c mungo -n '__fish_seen_subcommand_from run' -l steps -x
complete -c mungo -n '__fish_seen_subcommand_from run' -l order -x
complete -c mungo -n '__fish_seen_subcommand_from run' -l trace
complete -c mungo -n '__fish_seen_subcommand_from run' -l out -x -a '(__fish_complete_directories)'
complete -c mungo -n '__fish_seen_subcommand_from run' -l role -x
complete -c mungo -n '__fish_seen_subcommand_from run' -l main -x
complete -c mungo -f -n __fish_use_subcommand -a fit -d 'tells whether the roles of a program fit the global protocol G, so that none gets stuck on another'
complete -c mungo -n '__fish_seen_subcommand_from fit' -l role -x
complete -c mungo -f -n __fish_use_subcommand -a exec -d 'runs the class files F.. as they are; with --main C the class C alone'
complete -c mungo -n '__fish_seen_subcommand_from exec' -l steps -x
complete -c mungo -n '__fish_seen_subcommand_from exec' -l order -x
complete -c mungo -n '__fish_seen_subcommand_from exec' -l trace
complete -c mungo -n '__fish_seen_subcommand_from exec' -l role -x
complete -c mungo -n '__fish_seen_subcommand_from exec' -l main -x
complete -c mungo -f -n __fish_use_subcommand -a verify -d 'tells how many methods the class files F.. have, where no run of them can meet wrong code'
complete -c mungo -f -n __fish_use_subcommand -a load -d 'runs a workload that it makes: two roles that answer each other over N branches'
complete -c mungo -f -n __fish_use_subcommand -l help -d 'tells the commands'
complete -c mungo -f -n __fish_use_subcommand -l version -d 'tells the version'
complete -c mungo -x -n __fish_use_subcommand -l explain -d 'tells of a fault' -a 'ArgsMayMove Arity BadAttribute BadByte BadDescriptor BadEscape BadIndex BadLabel BadLine BadMagic BadNumber BadSwitch BadTag BadText BranchStart CodeTooLong DuplicateClass DuplicateLabel DuplicateLocal DuplicateMember DuplicateMethod DuplicateName DuplicateProtocol DuplicateRec DuplicateState FieldNeedsValue FieldOpenAtEnd InstanceInPlain JumpOutside LabelsDiffer LeftOpen MadeElsewhere MaybeNull MissingMethod MissingReturn MixedChoice NameClash NoCode NoMain NoProtocol NotAccepted NotLast NotMade NotMergeable NotOffered OpenComment OpenText OtherProtocol Overwritten OwnSession PayloadCount PeerIsSelf PoolFull ReservedEnd ReservedLabel RolesDiffer SameLabel SameRole SelfCall SharedMain Short SignatureDiffers StartsWithDo Stranger Syntax TextTooLong ThisAsValue TooLarge TooManyLocals TooManyStates TrailingBytes TypeMismatch Unguarded UnknownClass UnknownMember UnknownName UnknownOpcode UnknownProtocol UnknownRec UnknownRole UnknownState UnknownType UnknownTypestate Unplayed Unprojected Unreachable Unsupported Unverified UseMoved Version'
