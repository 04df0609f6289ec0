"""Lines of thirty kinds of logs, with the form and the place that `stamps` chooses by such a line, and the instant of its stamp.

The offset of those without one is +05:30, and the year 2024.
"""

from collections import namedtuple

# A kind: its name, a line, the form and the place that the line chooses, the options that these lack, and the instant in UTC.
Kind = namedtuple("Kind", "name line chosen lacks instant")

PLAIN = "rfc3339 at front"
OFFSET = ("--offset", "+05:30")
BOTH = (*OFFSET, "--year", "2024")

KINDS = (
    Kind(
        "journald, `short-iso` before systemd 255",
        "2024-02-29T12:00:00+0530 host sshd[1]: accepted",
        "journald at front",
        (),
        "2024-02-29T06:30:00.000000000Z",
    ),
    Kind(
        "journald, `short-iso` from systemd 255",
        "2024-02-29T12:00:00+05:30 host sshd[1]: accepted",
        PLAIN,
        (),
        "2024-02-29T06:30:00.000000000Z",
    ),
    Kind(
        "rsyslog, `RSYSLOG_FileFormat`",
        "2024-02-29T12:00:00.123456+05:30 host sshd[1]: accepted",
        PLAIN,
        (),
        "2024-02-29T06:30:00.123456000Z",
    ),
    Kind(
        "syslog of RFC 5424",
        "<34>1 2003-10-11T22:14:15.003Z mymachine.example.com su - ID47 - failed",
        "rfc5424 at front",
        (),
        "2003-10-11T22:14:15.003000000Z",
    ),
    Kind(
        "syslog of RFC 3164",
        "<34>Oct 11 22:14:15 mymachine su: failed",
        "rfc3164 at front",
        BOTH,
        "2024-10-11T16:44:15.000000000Z",
    ),
    Kind(
        "Docker and CRI",
        "2016-10-06T00:17:09.669794202Z stdout F The content of the log entry 1",
        PLAIN,
        (),
        "2016-10-06T00:17:09.669794202Z",
    ),
    Kind(
        "`kubectl logs --timestamps`",
        "2024-02-29T06:30:00.123456789Z I0229 main.go:10] started",
        PLAIN,
        (),
        "2024-02-29T06:30:00.123456789Z",
    ),
    Kind("MySQL 8", "2024-02-29T06:30:00.123456Z 0 [System] [MY-010116] starting", PLAIN, (), "2024-02-29T06:30:00.123456000Z"),
    Kind(
        "GitHub Actions",
        "2024-02-29T06:30:00.1234567Z ##[group]Run actions/checkout",
        PLAIN,
        (),
        "2024-02-29T06:30:00.123456700Z",
    ),
    Kind(
        "`dmesg --time-format=iso`",
        "2024-02-29T06:30:00,123456+00:00 usb 1-1: new device",
        "rfc3339-comma at front",
        (),
        "2024-02-29T06:30:00.123456000Z",
    ),
    Kind(
        "nginx and Apache, access",
        '127.0.0.1 - - [10/Oct/2000:13:55:36 -0700] "GET / HTTP/1.0" 200 2326',
        "clf at access",
        (),
        "2000-10-10T20:55:36.000000000Z",
    ),
    Kind(
        "nginx, error",
        "2024/02/29 12:00:00 [error] 31#31: *1 open() failed",
        "nginx-error at front",
        OFFSET,
        "2024-02-29T06:30:00.000000000Z",
    ),
    Kind(
        "Python, `logging`",
        "2024-02-29 12:00:00,123 INFO root: started",
        "local-comma at front",
        OFFSET,
        "2024-02-29T06:30:00.123000000Z",
    ),
    Kind(
        "log4j and Hadoop",
        "2015-10-18 18:01:47,978 INFO [main] org.apache.hadoop.mapreduce",
        "local-comma at front",
        OFFSET,
        "2015-10-18T12:31:47.978000000Z",
    ),
    Kind(
        "Elasticsearch",
        "[2024-02-29T06:30:00,123][INFO ][o.e.n.Node] started",
        "local-comma at after:[",
        OFFSET,
        "2024-02-29T01:00:00.123000000Z",
    ),
    Kind(
        "Kafka",
        "[2024-02-29 06:30:00,123] INFO started (kafka.server.KafkaServer)",
        "local-comma at after:[",
        OFFSET,
        "2024-02-29T01:00:00.123000000Z",
    ),
    Kind(
        "Envoy",
        '[2016-04-15T20:17:00.310Z] "POST /api/v1/locations HTTP/2" 204',
        "rfc3339 at after:[",
        (),
        "2016-04-15T20:17:00.310000000Z",
    ),
    Kind(
        "PostgreSQL",
        "2024-02-29 12:00:00.123 UTC [123] LOG:  database system is ready",
        "postgres at front",
        (),
        "2024-02-29T12:00:00.123000000Z",
    ),
    Kind(
        "a load balancer of AWS",
        "https 2018-07-02T22:23:00.186641Z app/my-loadbalancer/50dc6c495c0c9188 192.168.131.39:2817",
        "rfc3339 at field:2",
        (),
        "2018-07-02T22:23:00.186641000Z",
    ),
    Kind("Go, `log`", "2009/11/10 23:00:00 hello", "nginx-error at front", OFFSET, "2009-11-10T17:30:00.000000000Z"),
    Kind(
        "Go, `slog`",
        '{"time":"2024-02-29T06:30:00.123456789Z","level":"INFO","msg":"hello"}',
        "rfc3339 at json:time",
        (),
        "2024-02-29T06:30:00.123456789Z",
    ),
    Kind(
        "zap", '{"level":"info","ts":1709188200.1234567,"msg":"hello"}', "unix at json:ts", (), "2024-02-29T06:30:00.123456700Z"
    ),
    Kind(
        "pino",
        '{"level":30,"time":1709188200123,"pid":1,"msg":"hello"}',
        "unix-ms at json:time",
        (),
        "2024-02-29T06:30:00.123000000Z",
    ),
    Kind("Squid", "1286536308.779 180 192.168.0.224 TCP_MISS/200 411 GET", "unix at front", (), "2010-10-08T11:11:48.779000000Z"),
    Kind(
        "auditd",
        "type=SYSCALL msg=audit(1364481363.243:24287): arch=c000003e",
        "unix at after:audit(",
        (),
        "2013-03-28T14:36:03.243000000Z",
    ),
    Kind(
        "HAProxy",
        "Feb  6 12:12:56 localhost haproxy[14389]: 10.0.1.2:33317 [06/Feb/2009:12:12:51.443] fnt bck/srv1",
        "syslog at front",
        BOTH,
        "2024-02-06T06:42:56.000000000Z",
    ),
    Kind(
        "Redis",
        "1:M 29 Feb 2024 12:00:00.123 * Ready to accept connections",
        "redis at field:2",
        OFFSET,
        "2024-02-29T06:30:00.123000000Z",
    ),
    Kind(
        "mail of RFC 2822", "Thu, 29 Feb 2024 12:00:00 +0530 delivered", "rfc2822 at front", (), "2024-02-29T06:30:00.000000000Z"
    ),
    Kind("`git log --date=iso`", "2024-02-29 12:00:00 +0530 commit", "git at front", (), "2024-02-29T06:30:00.000000000Z"),
    Kind("`date -u`", "Thu Feb 29 06:30:00 UTC 2024 hello", "date at front", (), "2024-02-29T06:30:00.000000000Z"),
)
