# Completions of lpt for fish: `source completions/lpt.fish`.

# Whether the words begin with these commands.
function __lpt_at
    set -l words (commandline -opc)[2..-1]
    for command in $argv
        test "$words[1]" = "$command"; or return 1
        set -e words[1]
    end
end

# Whether the words are these commands, and no more stand behind them.
function __lpt_is
    __lpt_at $argv; and test (count (commandline -opc)) -eq (math 1 + (count $argv))
end

# Whether the words begin with a command below `pass`, other than its help.
function __lpt_in_pass
    __lpt_at pass load; or __lpt_at pass dump; or __lpt_at pass check; or __lpt_at pass patch
end

complete -c lpt -f

# Commands.
complete -c lpt -n '__lpt_is' -a run -d 'Run a script of the simulator'
complete -c lpt -n '__lpt_is' -a threads -d 'Run a script, then let ten threads send and deliver what is open'
complete -c lpt -n '__lpt_is' -a decode -d 'Decode a packet given in hexadecimal'
complete -c lpt -n '__lpt_is' -a list -d 'List the packets of a file or a pipe'
complete -c lpt -n '__lpt_is' -a split -d "Split a message into parts, and write their packets"
complete -c lpt -n '__lpt_is' -a join -d 'Join the parts that packets carry, and write the message'
complete -c lpt -n '__lpt_is' -a extract -d 'Extract octets of memory from dump reports'
complete -c lpt -n '__lpt_is' -a link -d 'Lose, repeat, delay and damage packets, as a bad link does'
complete -c lpt -n '__lpt_is' -a spacecraft -d 'Play the spacecraft: take packets, execute requests, write reports'
complete -c lpt -n '__lpt_is' -a verify -d 'List requests with what verification reports say about them'
complete -c lpt -n '__lpt_is' -a compare -d 'Compare a file with the checksums in check reports'
complete -c lpt -n '__lpt_is' -a checksum -d 'Print the checksum that a check report has for a file'
complete -c lpt -n '__lpt_is' -a patch -d 'Write lists for ground patch that turn one image into another, and back'
complete -c lpt -n '__lpt_is' -a ground -d 'Send requests to a memory until reports settle them'
complete -c lpt -n '__lpt_is' -a pass -d 'Carry requests to a spacecraft over links that lose, all in one process'
complete -c lpt -n '__lpt_is' -a request -d 'Write telecommands that load, dump or check a memory'
complete -c lpt -n '__lpt_is' -a help -d 'Print the help of a command'
complete -c lpt -n '__lpt_is help' -a 'run threads decode list split join extract link spacecraft verify compare checksum patch ground pass request help'
for family in ground pass request
    complete -c lpt -n "__lpt_is help $family; or __lpt_is $family help" -a 'load dump check'
end
for family in ground pass
    complete -c lpt -n "__lpt_is help $family; or __lpt_is $family help" -a 'patch'
end
complete -c lpt -n '__lpt_is ground' -a load -d 'Load a file into a memory, and end once all of it is there'
complete -c lpt -n '__lpt_is ground' -a dump -d 'Fetch octets of a memory, and write them once all have come'
complete -c lpt -n '__lpt_is ground' -a check -d 'Compare a file with checksums of a memory'
complete -c lpt -n '__lpt_is ground' -a patch -d 'Load the files of a list into memories, and end once all of them are there'
complete -c lpt -n '__lpt_is pass' -a load -d 'Load a file into a memory over links that lose'
complete -c lpt -n '__lpt_is pass' -a dump -d 'Fetch octets of a memory over links that lose'
complete -c lpt -n '__lpt_is pass' -a check -d 'Compare a file with checksums of a memory over links that lose'
complete -c lpt -n '__lpt_is pass' -a patch -d 'Load the files of a list into memories over links that lose'
complete -c lpt -n '__lpt_is ground; or __lpt_is pass' -a help -d 'Print the help of a command'
complete -c lpt -n '__lpt_is request' -a load -d 'Load octets into a memory'
complete -c lpt -n '__lpt_is request' -a dump -d 'Ask for octets of a memory'
complete -c lpt -n '__lpt_is request' -a check -d 'Ask for checksums of a memory'
complete -c lpt -n '__lpt_is request' -a help -d 'Print the help of a command'

# Words.
complete -c lpt -n '__lpt_is split; or __lpt_is join' -a 'up down'
complete -c lpt -n '__lpt_at run; or __lpt_at threads; or __lpt_at list' -F
complete -c lpt -n '__lpt_at split up; or __lpt_at split down' -F
complete -c lpt -n '__lpt_at join up; or __lpt_at join down' -F
complete -c lpt -n '__lpt_at extract; or __lpt_at link; or __lpt_at verify; or __lpt_at compare; or __lpt_at checksum; or __lpt_at patch' -F
complete -c lpt -n '__lpt_at request load; or __lpt_at ground load; or __lpt_at ground check' -F
complete -c lpt -n '__lpt_at pass load; or __lpt_at pass check' -F
complete -c lpt -n '__lpt_at ground patch; or __lpt_at pass patch' -F
complete -c lpt -n '__lpt_at ground dump; or __lpt_at pass dump; and __fish_contains_opt area' -F

# Options.
complete -c lpt -n 'not __lpt_at help; and not __lpt_at ground help; and not __lpt_at pass help; and not __lpt_at request help' -s h -l help -d 'Print help'
complete -c lpt -n 'not __lpt_at help; and not __lpt_at ground help; and not __lpt_at pass help; and not __lpt_at request help' -s V -l version -d 'Print version'
for command in run threads decode list split join extract spacecraft compare 'request load' 'request dump' 'request check'
    complete -c lpt -n "__lpt_at $command" -l config -r -F -d 'A TOML file with the configuration'
    complete -c lpt -n "__lpt_at $command" -l apid -x -d 'The APID of all packets, 0 to 2046'
    complete -c lpt -n "__lpt_at $command" -l part-size -x -d 'The size of a part in octets, 4 to 1024'
end
for command in run threads decode list split join extract spacecraft compare
    complete -c lpt -n "__lpt_at $command" -l source -x -d 'The source of an ID that is written without one, 0 to 65535'
end
for command in run threads spacecraft
    complete -c lpt -n "__lpt_at $command" -l mode -x -a 'any strict' -d 'Take parts in any order, or strictly in the order of their numbers'
end
complete -c lpt -n '__lpt_at run' -l views -d 'Let the script also show link, senders, receptions and jobs'
complete -c lpt -n '__lpt_at list; or __lpt_at verify' -l json -d 'Print each line as a JSON object'
complete -c lpt -n '__lpt_at verify' -l open -d 'Write the packets of requests that no report settles, in place of the list'
complete -c lpt -n '__lpt_at decode' -l more -d 'Also print how many areas a request or report has, the first of them, and which segment a packet is'
complete -c lpt -n '__lpt_at decode; or __lpt_at list; or __lpt_at split; or __lpt_at join; or __lpt_at extract; or __lpt_at link; or __lpt_at verify; or __lpt_at compare; or __lpt_at request load; or __lpt_at request dump; or __lpt_at request check' -l layout -r -F -d "A TOML file with the mission's layouts of headers and parts"
complete -c lpt -n '__lpt_at list' -l strict -d 'Stop at damage, or octets that are no packet'
for command in list join
    complete -c lpt -n "__lpt_at $command" -l from -x -d 'Read from this place on, the number of an octet as list prints it'
    complete -c lpt -n "__lpt_at $command" -l to -x -d "Read up to this place, without its octet"
end
complete -c lpt -n '__lpt_at split' -l parts -x -d 'The parts to write, such as 3,7-9,12-; with --each ID:LIST'
complete -c lpt -n '__lpt_at split' -l each -d 'Split each packet of the file as a message; the IDs count up from ID'
complete -c lpt -n '__lpt_at split' -l whole -d 'Write a message that fits in one part as it is, unsplit'
complete -c lpt -n '__lpt_at split' -l pcap -d 'Write the packets as a pcap capture; not with --each'
complete -c lpt -n '__lpt_at join' -l id -x -d "The message's ID or SOURCE/ID; needed if parts of several messages came"
complete -c lpt -n '__lpt_at join' -l first -d 'Write the first message under its name, even if others of that name come after it'
complete -c lpt -n '__lpt_at join' -l any -d 'Write the joined message even if it is no packet'
complete -c lpt -n '__lpt_at join' -l json -d 'Print a JSON object for each message, with where it is in the packets; only with --each'
complete -c lpt -n '__lpt_at join' -l each -x -a '(__fish_complete_directories)' -d 'Write each message to a file of its own in this folder; not with --id or --first'
complete -c lpt -n '__lpt_at extract' -l at -x -d 'Write an image of this memory, each area at its address'
complete -c lpt -n '__lpt_at extract' -l from -x -d 'The address at which the image begins; 0 if not given'
complete -c lpt -n '__lpt_at extract' -l fill -x -d 'The octet for addresses that no area covers, 0 to 255; 0 if not given'
complete -c lpt -n '__lpt_at extract' -l whole -d 'Write the image only if nothing of it is missing or was passed over'
complete -c lpt -n '__lpt_at extract' -l join -d 'Also take dump reports that came in parts'
complete -c lpt -n '__lpt_at checksum' -l from -x -d 'The place of the first octet'
complete -c lpt -n '__lpt_at checksum' -l length -x -d 'How many octets; all that follow if not given'
complete -c lpt -n '__lpt_at patch' -l gap -x -d "Join areas with at most N octets between them that don't differ"
complete -c lpt -n '__lpt_at patch' -l align -x -d 'Let areas begin and end at multiples of N, as far as the image reaches'
complete -c lpt -n '__lpt_at patch' -l part-size -x -d 'The size of a part in octets, 4 to 1024'
for command in list join extract link verify compare
    complete -c lpt -n "__lpt_at $command" -l quiet -d 'Report only why the status is not 0'
end
complete -c lpt -n '__lpt_at request load' -l area -x -d 'Load another file to another address, in the same requests'
complete -c lpt -n '__lpt_at link; or __lpt_in_pass' -l lose -x -d "The share of packets that get lost"
complete -c lpt -n '__lpt_at link; or __lpt_in_pass' -l repeat -x -d 'The share of packets that are written twice'
complete -c lpt -n '__lpt_at link; or __lpt_in_pass' -l damage -x -d 'The share of packets in which bits change'
complete -c lpt -n '__lpt_at link' -l damage-headers -x -d 'The share of packets whose header is damaged, also its first octet and its length'
complete -c lpt -n '__lpt_at link; or __lpt_in_pass' -l delay -x -d 'Delay packets, each by at most N others, 0 to 1000'
complete -c lpt -n '__lpt_at link' -l seed -x -d 'The random seed; the same seed, options and packets give the same output'
complete -c lpt -n '__lpt_in_pass' -l seed -x -d 'The random seed; what gets lost also depends on how fast the machine is'
complete -c lpt -n '__lpt_at spacecraft; or __lpt_in_pass' -l memory -x -d 'The ID of a memory, and the file of its first content, 1 to 1048576 octets'
complete -c lpt -n '__lpt_at spacecraft; or __lpt_in_pass' -l save -d 'Write a memory back to its file after each load, and all of them at the end'
complete -c lpt -n '__lpt_at spacecraft' -l tick-every -x -d 'Move the clock on by a tick after every N packets'
complete -c lpt -n '__lpt_at spacecraft' -l tick -x -d 'Move the clock on by a tick every MS milliseconds, even if nothing comes'
complete -c lpt -n '__lpt_at spacecraft' -l reuse -x -d 'Free a name N ticks after its reception ended or its report was sent'
complete -c lpt -n '__lpt_at spacecraft' -l resync -d 'Go on after octets that are no packet'
complete -c lpt -n '__lpt_at spacecraft' -l longest -x -d 'The octets of the longest packet on the link; a header that says more is damaged'
complete -c lpt -n '__lpt_at spacecraft' -l log -d 'Report on standard error what becomes of each packet and request'
complete -c lpt -n '__lpt_at spacecraft; or __lpt_in_pass' -l state -r -F -d 'Keep the state and the memories in this file, and go on from it next time'
for command in 'request load' 'request dump' 'request check'
    complete -c lpt -n "__lpt_at $command" -l source -x -d 'The source ID of the telecommands, 0 to 65535'
    complete -c lpt -n "__lpt_at $command" -l each -x -d 'At most N octets in a request'
    complete -c lpt -n "__lpt_at $command" -l ack -x -d 'Acknowledgement flags, 0 to 15, a sum: 1 acceptance, 2 start, 4 progress, 8 completion'
end
for command in 'ground load' 'ground dump' 'ground check' 'ground patch' 'pass load' 'pass dump' 'pass check' 'pass patch'
    complete -c lpt -n "__lpt_at $command" -l config -r -F -d 'A TOML file with the configuration'
    complete -c lpt -n "__lpt_at $command" -l apid -x -d 'The APID of all packets, 0 to 2046'
    complete -c lpt -n "__lpt_at $command" -l source -x -d 'A source that no earlier pass had, 1 to 65535; this or --passes must be given'
    complete -c lpt -n "__lpt_at $command" -l passes -r -F -d 'Take the source after the one in this file, and write it there; all operators share one file'
    complete -c lpt -n "__lpt_at $command" -l part-size -x -d 'The size of a part in octets, 4 to 1024'
    complete -c lpt -n "__lpt_at $command" -l wait -x -d 'Send open requests again if nothing came for MS milliseconds'
    complete -c lpt -n "__lpt_at $command" -l tries -x -d 'Give up after N waits in a row that settled nothing'
    complete -c lpt -n "__lpt_at $command" -l job -r -F -d 'Keep in this file what is completed; the same command with another source goes on from it'
    complete -c lpt -n "__lpt_at $command" -l longest -x -d 'The octets of the longest packet on the link; a header that says more is damaged'
    complete -c lpt -n "__lpt_at $command" -l json -d 'Print each line as a JSON object'
    complete -c lpt -n "__lpt_at $command" -l quiet -d 'Report only why the status is not 0'
end
for command in 'ground load' 'ground check' 'pass load' 'pass check'
    complete -c lpt -n "__lpt_at $command" -l area -x -d 'Another file at another address, in the same pass'
end
for command in ground pass
    complete -c lpt -n "__lpt_at $command load; or __lpt_at $command patch" -l ack -x -a '8 10' -d 'The acknowledgement flags: with 10 a report of start counts as well'
    complete -c lpt -n "__lpt_at $command load" -l large -d 'Load the file in one step, all or nothing: by one request, in parts if it is long; not with --area or --job'
    complete -c lpt -n "__lpt_at $command load" -l name -x -d 'With --large: the transaction ID under which the parts go first'
    complete -c lpt -n "__lpt_at $command load" -l names -x -d 'With --large: give up after N IDs; the parts go under the first for 4 rounds, then for 8, 12 and so on'
    complete -c lpt -n "__lpt_at $command load; or __lpt_at $command patch" -l verify -d 'Dump the octets after the load, and compare them'
    complete -c lpt -n "__lpt_at $command dump" -l to -r -F -d 'Where the octets are written once all have come; must be given'
    complete -c lpt -n "__lpt_at $command dump" -l area -x -d 'Other octets and their file, in the same pass'
end
complete -c lpt -n '__lpt_at ground load; or __lpt_at ground dump; or __lpt_at ground check; or __lpt_at ground patch' -l up -r -F -d 'Where requests are written, in place of standard output'
complete -c lpt -n '__lpt_at ground load; or __lpt_at ground dump; or __lpt_at ground check; or __lpt_at ground patch' -l resync -d 'Go on after octets that are no packet'
for command in split 'ground load' 'ground dump' 'ground check' 'ground patch' 'pass load' 'pass dump' 'pass check' 'pass patch' 'request load' 'request dump' 'request check'
    complete -c lpt -n "__lpt_at $command" -l count -x -d 'The sequence count of the first packet, 0 to 16383'
end
