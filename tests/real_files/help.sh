# The help, that of each command, and words that are no question for it.
# A part of real_files.sh, which has what it calls, and runs it in a folder of its own.

# The help begins with lines of every day.
got=0
"$run" --help >help.txt 2>err.txt || got=$?
same 'the status of the help' "$got $(cat err.txt)" '0 '
same 'the first lines of the help' "$(head -n 10 help.txt)" 'Usage: quota_cli COMMAND [OPTION]... [OPERAND]...
   or: quota_cli COMMAND --help

The Linux disk quota tools, for quota files while quotas are off.

Examples:
    quota_cli repquota -u --names /etc/passwd /home/aquota.user
    quota_cli setquota -u --names /etc/passwd alice 100M 200M 1k 2k \
        /home/aquota.user
    quota_cli setquota --help'

# helped COMMAND FORMS OPTIONS FORMATS EXAMPLES: what is said of the use of a command.
helped() {
    local of="of the help of $1" got=0
    "$run" "$1" --help >help.txt 2>err.txt || got=$?
    same "the status $of" "$got $(cat err.txt)" '0 '
    same "the forms $of" "$(sed '/^$/q' help.txt)" "$2"
    same "the options $of" "$(sed -n 's/^  \([^ ].*\)/\1/p' help.txt | sed 's/  .*//' | paste -sd ';')" "$3"
    same "the formats $of" "$(awk -v RS= '/(^| )vfs/ && !/^Examples:/' help.txt)" "$4"
    same "the examples $of" "$(sed -n '/^Examples:$/,/^$/s/^    //p' help.txt)" "$5"
    same "the last line $of" "$(tail -n 1 help.txt)" "The manual page is the reference: man ${6-quota_cli-$1}."
}
any='FORMAT is vfsold, vfsold32, vfsv0 or vfsv1. Without -F the file says which of
the last two it has; a flat file needs -F vfsold, or -F vfsold32 where its
records have 32 bytes, and projects have none.'
helped repquota 'Usage: quota_cli repquota [-u|-g|-P] [-v] [-n] [-p] [-F FORMAT] [--names FILE]
                          FILE' '-u, -g, -P;-v;-n;-p;-F FORMAT;--names FILE' "$any" \
    'quota_cli repquota -u --names /etc/passwd /home/aquota.user
quota_cli repquota -g --names /etc/group /home/aquota.group'
helped setquota 'Usage: quota_cli setquota [-u|-g|-P] [-F FORMAT] [--names FILE]
                          NAME BSOFT BHARD ISOFT IHARD FILE
   or: quota_cli setquota [-u|-g|-P] [-F FORMAT] [--names FILE]
                          -p PROTO NAME FILE
   or: quota_cli setquota [-u|-g|-P] [-F FORMAT] [--names FILE]
                          -t BGRACE IGRACE FILE
   or: quota_cli setquota [-u|-g|-P] [-F FORMAT] [--names FILE]
                          -T NAME BTIME ITIME FILE
   or: quota_cli setquota [-u|-g|-P] [-F FORMAT] [--names FILE]
                          -b [--input FILE] FILE' \
    '-u, -g, -P;-F FORMAT;--names FILE;-p PROTO;-t;-T;-b;--input FILE' "$any" \
    'quota_cli setquota -u --names /etc/passwd alice 100M 200M 1k 2k \
    /home/aquota.user
quota_cli setquota -u --names /etc/passwd -b --input lines \
    /home/aquota.user'
helped edquota 'Usage: quota_cli edquota [-u|-g|-P] [-F FORMAT] [--names FILE]
                         --print NAME FILE
   or: quota_cli edquota [-u|-g|-P] [-F FORMAT] [--names FILE]
                         --apply [--input FILE] NAME FILE' \
    '-u, -g, -P;-F FORMAT;--names FILE;--print;--apply;--input FILE' "$any" \
    'quota_cli edquota --print -u --names /etc/passwd alice \
    /home/aquota.user >form
quota_cli edquota --apply -u --names /etc/passwd --input form alice \
    /home/aquota.user'
helped quotacheck 'Usage: quota_cli quotacheck [-u|-g|-P] [-c] [-F FORMAT] [--device NUMBER]
                            [--input FILE] FILE' '-u, -g, -P;-c;-F FORMAT;--device NUMBER;--input FILE' \
    'FORMAT is vfsold, vfsold32, vfsv0 or vfsv1. Without -F the file says which of
the last two it has, and a new one is vfsv1; a flat file needs -F vfsold, or
-F vfsold32 where its records have 32 bytes, and projects have none.' \
    "find /home -xdev ! -path /home/aquota.user ! -path /home/aquota.group \\
    -printf '%U %G %D %i %b\\n' >/root/listing &&
    quota_cli quotacheck -u --device \"\$(stat -c %d /home)\" \\
        --input /root/listing /home/aquota.user
quota_cli quotacheck -c -g --input /root/listing /home/aquota.group"
helped convertquota 'Usage: quota_cli convertquota [-u|-g|-P] -f OLD,NEW SOURCE TARGET' '-u, -g, -P;-f OLD,NEW' \
    'OLD and NEW are vfsold, vfsold32, vfsv0 or vfsv1; projects have neither of the
first two, which are flat: with records of 40 bytes, and of 32.' 'quota_cli convertquota -u -f vfsv0,vfsv1 /home/aquota.user \
    /home/aquota.user.vfsv1
quota_cli convertquota -u -f vfsold,vfsv1 /home/quota.user \
    /home/aquota.user'
helped rquotad 'Usage: quota_cli rquotad [--format FORMAT] --calls NUMBER --port NUMBER
                         (--export PATH KIND FILE)...' \
    '--format FORMAT;--calls NUMBER;--port NUMBER;--export PATH KIND FILE' \
    'FORMAT is vfsold, vfsold32, vfsv0 or vfsv1. Without --format each file says
which of the last two it has; flat files need --format vfsold, or
--format vfsold32 where their records have 32 bytes, and projects have none.' 'quota_cli rquotad --calls 1000 --port 8750 \
    --export /home user /home/aquota.user
quota_cli rquotad --calls 1000 --port 8750 \
    --export /home user /home/aquota.user \
    --export /home group /home/aquota.group'
helped script 'Usage: quota_cli script' '' 'The formats are those of its commands: vfsold, vfsold32, vfsv0 and vfsv1.' \
    "quota_cli script <commands
echo 'repquota -u --names /etc/passwd /home/aquota.user' | quota_cli script" quota_cli
helped generate 'Usage: quota_cli generate SEED COUNT FILE' '' 'The format of FILE is vfsv1.' \
    'quota_cli generate 0 1000 /root/made.user
quota_cli generate 1 100000 /root/large.user' quota_cli
for name in script generate; do
    same "$name has no options" "$("$run" "$name" --help | grep -c '^It has no options')" 1
done

# Those two words alone ask for it.
unknown='quota: usage: UnknownCommand at word 0'
expect 'help in front of a command' 2 '' "$unknown" --help repquota
expect 'help of the help' 2 '' "$unknown" --help --help
expect 'help of no command' 2 '' "$unknown" quotaon --help
expect 'help of an empty word' 2 '' "$unknown" '' --help
expect 'help and an operand' 2 '' 'quota: usage: UnknownOption at word 1' repquota --help q
expect 'an operand and help' 2 '' 'quota: usage: UnknownOption at word 2' repquota q --help
expect 'an option and help' 2 '' 'quota: usage: UnknownOption at word 2' repquota -u --help
expect 'help twice' 2 '' 'quota: usage: UnknownOption at word 1' repquota --help --help
expect 'a file of that name' 1 '' 'quota: --help: no such file' repquota -- --help
expect 'help with a value' 2 '' 'quota: usage: UnknownOption at word 1' repquota --help=
expect 'help that is cut short' 2 '' 'quota: usage: UnknownOption at word 1' repquota --hel
expect 'the version of a command' 2 '' 'quota: usage: UnknownOption at word 1' repquota --version
expect 'a letter behind a command' 2 '' 'quota: usage: UnknownOption at word 1' repquota -h
echo 'repquota --help' >lines
runner=(sh -c 'exec "$0" script <lines' "$run")
expect 'help in a script' 2 '' 'quota: line 1: usage: UnknownOption at word 1'
runner=("$run")

# An output that is full, or closed.
got=0
"$run" setquota --help >/dev/full 2>err.txt || got=$?
same 'help of a command to a full output' "$got $(cat err.txt)" '4 quota: output fault'
got=0
"$run" setquota --help >&- 2>err.txt || got=$?
same 'help of a command to a closed output' "$got $(cat err.txt)" '4 quota: output fault'
