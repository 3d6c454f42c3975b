# Makes a device in a temporary folder, keeps a message on it, lists it, and takes it in another run of the program.
# The one argument is the program.
set -eu
ipcd=$1
here=$(dirname "$0")
folder=$(mktemp -d)
trap 'rm -r "$folder"' EXIT

echo "\$ ipcd format device --small"
"$ipcd" format "$folder/device" --small
echo "\$ ipcd run device < kept_message.script"
"$ipcd" run "$folder/device" < "$here/kept_message.script"
echo "\$ ipcd dump device"
"$ipcd" dump "$folder/device"
echo "\$ ipcd run device < taken_message.script"
"$ipcd" run "$folder/device" < "$here/taken_message.script"
