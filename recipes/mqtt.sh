# The bus is a topic of an MQTT server. The server keeps nothing: a late member works out what it missed,
# and so does one whose server was away.
own_port=1883

# Each new line of the topic.
from() {
    while true; do
        mosquitto_sub -h "$host" -p "$port" -q 1 -t "$1" -F %p
        sleep 1
    done
}

# Sends lines to the topic. Those that come while the server is away are lost.
to() {
    until mosquitto_pub -h "$host" -p "$port" -q 1 -t "$1" -l; do
        timeout 1 cat >/dev/null && return
    done
}
