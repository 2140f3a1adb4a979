# Completions of lpt for bash: `source completions/lpt.bash`.

_lpt() {
    local word=${COMP_WORDS[COMP_CWORD]} before=${COMP_WORDS[COMP_CWORD - 1]}
    local command='' request='' offered='' i
    for ((i = 1; i < COMP_CWORD; i++)); do
        case $command:${COMP_WORDS[i]} in
        :run | :threads | :decode | :list | :split | :join | :extract | :link | :spacecraft | :verify | :compare | :checksum | :patch | :ground | :pass | :request | :help)
            command=${COMP_WORDS[i]}
            ;;
        ground:load | ground:dump | ground:check | ground:patch | ground:help | \
            pass:load | pass:dump | pass:check | pass:patch | pass:help | \
            request:load | request:dump | request:check | request:help)
            request=${COMP_WORDS[i]}
            break
            ;;
        esac
    done
    local options='--config --apid --source --part-size --help --version'
    case $command:$request in
    run:*) options+=' --views --mode' ;;
    threads:*) options+=' --mode' ;;
    decode:*) options+=' --more --layout' ;;
    list:*) options+=' --json --strict --from --to --layout --quiet' ;;
    split:*) options+=' --parts --count --each --whole --pcap --layout' ;;
    join:*) options+=' --id --first --any --each --json --from --to --layout --quiet' ;;
    extract:*) options+=' --at --from --fill --whole --join --layout --quiet' ;;
    link:*) options='--lose --repeat --damage --damage-headers --delay --seed --layout --quiet --help --version' ;;
    verify:*) options='--json --open --layout --quiet --help --version' ;;
    spacecraft:*) options+=' --mode --memory --save --tick-every --tick --reuse --resync --longest --log --state' ;;
    compare:*) options+=' --layout --quiet' ;;
    checksum:*) options='--from --length --help --version' ;;
    patch:*) options='--gap --align --part-size --help --version' ;;
    ground:load | ground:dump | ground:check | ground:patch)
        options+=' --passes --count --wait --tries --up --job --resync --longest --json --quiet'
        ;;
    pass:load | pass:dump | pass:check | pass:patch)
        options+=' --passes --count --wait --tries --job --longest --json --quiet'
        options+=' --memory --save --state --lose --repeat --damage --delay --seed'
        ;;
    request:load) options+=' --area --each --ack --count --layout' ;;
    request:dump | request:check) options+=' --each --ack --count --layout' ;;
    esac
    case $command:$request in
    ground:load | pass:load) options+=' --area --large --name --names --ack --verify' ;;
    ground:patch | pass:patch) options+=' --ack --verify' ;;
    ground:dump | pass:dump) options+=' --area --to' ;;
    ground:check | pass:check) options+=' --area' ;;
    esac
    COMPREPLY=()
    case $command:$request:$before:$word in
    ground:load:--ack:* | pass:load:--ack:* | ground:patch:--ack:* | pass:patch:--ack:*) offered='8 10' ;;
    *:*:--config:* | *:*:--layout:* | *:*:--state:* | *:*:--up:* | *:*:--job:* | *:*:--passes:* | ground:dump:--to:* | pass:dump:--to:*)
        mapfile -t COMPREPLY < <(compgen -f -- "$word")
        return
        ;;
    join:*:--each:*)
        mapfile -t COMPREPLY < <(compgen -d -- "$word")
        return
        ;;
    *:*:--from:* | *:*:--to:* | *:*:--at:* | *:*:--fill:* | *:*:--gap:* | *:*:--align:* | *:*:--length:* | *:*:--parts:* | *:*:--id:* | *:*:--ack:* | *:*:--count:* | *:*:--area:* | *:*:--each:* | \
        *:*:--wait:* | *:*:--tries:* | *:*:--name:* | *:*:--names:* | *:*:--lose:* | *:*:--repeat:* | *:*:--damage:* | *:*:--damage-headers:* | *:*:--delay:* | *:*:--seed:* | *:*:--memory:* | *:*:--tick-every:* | *:*:--reuse:* | \
        *:*:--apid:* | *:*:--source:* | *:*:--part-size:*)
        return
        ;;
    *:*:--mode:*) offered='any strict' ;;
    :*) offered='run threads decode list split join extract link spacecraft verify compare checksum patch ground pass request help --help --version' ;;
    help::help:*) offered='run threads decode list split join extract link spacecraft verify compare checksum patch ground pass request help' ;;
    help::ground:* | help::pass:* | ground:help:help:* | pass:help:help:*) offered='load dump check patch' ;;
    help::request:* | request:help:help:*) offered='load dump check' ;;
    help:* | ground:help:* | pass:help:* | request:help:*) return ;;
    ground::* | pass::*) offered='load dump check patch help --help --version' ;;
    request::*) offered='load dump check help --help --version' ;;
    *:*:*:-*) offered=$options ;;
    split::split:* | join::join:*) offered='up down' ;;
    decode:* | spacecraft:*) return ;;
    *)
        mapfile -t COMPREPLY < <(compgen -f -- "$word")
        return
        ;;
    esac
    mapfile -t COMPREPLY < <(compgen -W "$offered" -- "$word")
}

complete -o filenames -F _lpt lpt ./lpt
