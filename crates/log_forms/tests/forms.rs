//! Each form reads its sample. The instants are those of Python's `datetime`.
use super::{is_named, is_read};
use log_forms::FormName;

#[test]
fn sample_of_rfc3339(rt: HostRuntime) {
    is_named(
        &rt,
        FormName::Rfc3339,
        "rfc3339",
        "2024-02-29T12:00:00.5+05:30",
    );
    is_read(
        &rt,
        FormName::Rfc3339,
        b"2024-02-29T12:00:00.5+05:30",
        0,
        27,
        1709188200500000000,
    );
}

#[test]
fn sample_of_rfc3339_comma(rt: HostRuntime) {
    is_named(
        &rt,
        FormName::Rfc3339Comma,
        "rfc3339-comma",
        "2024-02-29T12:00:00,5+05:30",
    );
    is_read(
        &rt,
        FormName::Rfc3339Comma,
        b"2024-02-29T12:00:00,5+05:30",
        0,
        27,
        1709188200500000000,
    );
}

#[test]
fn sample_of_journald(rt: HostRuntime) {
    is_named(
        &rt,
        FormName::Journald,
        "journald",
        "2024-02-29T12:00:00+0530",
    );
    is_read(
        &rt,
        FormName::Journald,
        b"2024-02-29T12:00:00+0530",
        0,
        24,
        1709188200000000000,
    );
}

#[test]
fn sample_of_rfc5424(rt: HostRuntime) {
    is_named(
        &rt,
        FormName::Rfc5424,
        "rfc5424",
        "<34>1 2024-02-29T12:00:00.003Z",
    );
    is_read(
        &rt,
        FormName::Rfc5424,
        b"<34>1 2024-02-29T12:00:00.003Z",
        6,
        24,
        1709208000003000000,
    );
}

#[test]
fn sample_of_rfc3164(rt: HostRuntime) {
    is_named(&rt, FormName::Rfc3164, "rfc3164", "<34>Feb 29 12:00:00");
    is_read(
        &rt,
        FormName::Rfc3164,
        b"<34>Feb 29 12:00:00",
        4,
        15,
        1709204400000000000,
    );
}

#[test]
fn sample_of_git(rt: HostRuntime) {
    is_named(&rt, FormName::Git, "git", "2024-02-29 12:00:00 +0530");
    is_read(
        &rt,
        FormName::Git,
        b"2024-02-29 12:00:00 +0530",
        0,
        25,
        1709188200000000000,
    );
}

#[test]
fn sample_of_postgres(rt: HostRuntime) {
    is_named(
        &rt,
        FormName::Postgres,
        "postgres",
        "2024-02-29 12:00:00.123 UTC",
    );
    is_read(
        &rt,
        FormName::Postgres,
        b"2024-02-29 12:00:00.123 UTC",
        0,
        27,
        1709208000123000000,
    );
}

#[test]
fn sample_of_clf(rt: HostRuntime) {
    is_named(&rt, FormName::Clf, "clf", "29/Feb/2024:12:00:00 +0530");
    is_read(
        &rt,
        FormName::Clf,
        b"29/Feb/2024:12:00:00 +0530",
        0,
        26,
        1709188200000000000,
    );
}

#[test]
fn sample_of_git_default(rt: HostRuntime) {
    is_named(
        &rt,
        FormName::GitDefault,
        "git-default",
        "Thu Feb 29 12:00:00 2024 +0530",
    );
    is_read(
        &rt,
        FormName::GitDefault,
        b"Thu Feb 29 12:00:00 2024 +0530",
        0,
        30,
        1709188200000000000,
    );
}

#[test]
fn sample_of_date(rt: HostRuntime) {
    is_named(&rt, FormName::Date, "date", "Thu Feb 29 12:00:00 UTC 2024");
    is_read(
        &rt,
        FormName::Date,
        b"Thu Feb 29 12:00:00 UTC 2024",
        0,
        28,
        1709208000000000000,
    );
}

#[test]
fn sample_of_rfc2822(rt: HostRuntime) {
    is_named(
        &rt,
        FormName::Rfc2822,
        "rfc2822",
        "Thu, 29 Feb 2024 12:00:00 +0530",
    );
    is_read(
        &rt,
        FormName::Rfc2822,
        b"Thu, 29 Feb 2024 12:00:00 +0530",
        0,
        31,
        1709188200000000000,
    );
}

#[test]
fn sample_of_haproxy(rt: HostRuntime) {
    is_named(
        &rt,
        FormName::Haproxy,
        "haproxy",
        "29/Feb/2024:12:00:00.123",
    );
    is_read(
        &rt,
        FormName::Haproxy,
        b"29/Feb/2024:12:00:00.123",
        0,
        24,
        1709204400123000000,
    );
}

#[test]
fn sample_of_nginx_error(rt: HostRuntime) {
    is_named(
        &rt,
        FormName::NginxError,
        "nginx-error",
        "2024/02/29 12:00:00",
    );
    is_read(
        &rt,
        FormName::NginxError,
        b"2024/02/29 12:00:00",
        0,
        19,
        1709204400000000000,
    );
}

#[test]
fn sample_of_local_comma(rt: HostRuntime) {
    is_named(
        &rt,
        FormName::LocalComma,
        "local-comma",
        "2024-02-29 12:00:00,123",
    );
    is_read(
        &rt,
        FormName::LocalComma,
        b"2024-02-29 12:00:00,123",
        0,
        23,
        1709204400123000000,
    );
}

#[test]
fn sample_of_local(rt: HostRuntime) {
    is_named(&rt, FormName::Local, "local", "2024-02-29 12:00:00.123");
    is_read(
        &rt,
        FormName::Local,
        b"2024-02-29 12:00:00.123",
        0,
        23,
        1709204400123000000,
    );
}

#[test]
fn sample_of_two_spaces(rt: HostRuntime) {
    is_named(
        &rt,
        FormName::TwoSpaces,
        "two-spaces",
        "2024-02-29  12:00:00",
    );
    is_read(
        &rt,
        FormName::TwoSpaces,
        b"2024-02-29  12:00:00",
        0,
        20,
        1709204400000000000,
    );
}

#[test]
fn sample_of_apache_error(rt: HostRuntime) {
    is_named(
        &rt,
        FormName::ApacheError,
        "apache-error",
        "Thu Feb 29 12:00:00.123456 2024",
    );
    is_read(
        &rt,
        FormName::ApacheError,
        b"Thu Feb 29 12:00:00.123456 2024",
        0,
        31,
        1709204400123456000,
    );
}

#[test]
fn sample_of_redis(rt: HostRuntime) {
    is_named(&rt, FormName::Redis, "redis", "29 Feb 2024 12:00:00.123");
    is_read(
        &rt,
        FormName::Redis,
        b"29 Feb 2024 12:00:00.123",
        0,
        24,
        1709204400123000000,
    );
}

#[test]
fn sample_of_tomcat(rt: HostRuntime) {
    is_named(&rt, FormName::Tomcat, "tomcat", "29-Feb-2024 12:00:00.123");
    is_read(
        &rt,
        FormName::Tomcat,
        b"29-Feb-2024 12:00:00.123",
        0,
        24,
        1709204400123000000,
    );
}

#[test]
fn sample_of_erlang(rt: HostRuntime) {
    is_named(&rt, FormName::Erlang, "erlang", "29-Feb-2024::12:00:00");
    is_read(
        &rt,
        FormName::Erlang,
        b"29-Feb-2024::12:00:00",
        0,
        21,
        1709204400000000000,
    );
}

#[test]
fn sample_of_bgl(rt: HostRuntime) {
    is_named(&rt, FormName::Bgl, "bgl", "2024-02-29-12.00.00.123456");
    is_read(
        &rt,
        FormName::Bgl,
        b"2024-02-29-12.00.00.123456",
        0,
        26,
        1709204400123456000,
    );
}

#[test]
fn sample_of_syslog(rt: HostRuntime) {
    is_named(&rt, FormName::Syslog, "syslog", "Feb 29 12:00:00");
    is_read(
        &rt,
        FormName::Syslog,
        b"Feb 29 12:00:00",
        0,
        15,
        1709204400000000000,
    );
}

#[test]
fn sample_of_klog(rt: HostRuntime) {
    is_named(&rt, FormName::Klog, "klog", "I0229 12:00:00.123456");
    is_read(
        &rt,
        FormName::Klog,
        b"I0229 12:00:00.123456",
        1,
        20,
        1709204400123456000,
    );
}

#[test]
fn sample_of_android(rt: HostRuntime) {
    is_named(&rt, FormName::Android, "android", "02-29 12:00:00.123");
    is_read(
        &rt,
        FormName::Android,
        b"02-29 12:00:00.123",
        0,
        18,
        1709204400123000000,
    );
}

#[test]
fn sample_of_unix(rt: HostRuntime) {
    is_named(&rt, FormName::Unix, "unix", "1709188200.123");
    is_read(
        &rt,
        FormName::Unix,
        b"1709188200.123",
        0,
        14,
        1709188200123000000,
    );
}

#[test]
fn sample_of_unix_ms(rt: HostRuntime) {
    is_named(&rt, FormName::UnixMs, "unix-ms", "1709188200123");
    is_read(
        &rt,
        FormName::UnixMs,
        b"1709188200123",
        0,
        13,
        1709188200123000000,
    );
}

#[test]
fn sample_of_unix_us(rt: HostRuntime) {
    is_named(&rt, FormName::UnixUs, "unix-us", "1709188200123456");
    is_read(
        &rt,
        FormName::UnixUs,
        b"1709188200123456",
        0,
        16,
        1709188200123456000,
    );
}

#[test]
fn sample_of_unix_ns(rt: HostRuntime) {
    is_named(&rt, FormName::UnixNs, "unix-ns", "1709188200123456789");
    is_read(
        &rt,
        FormName::UnixNs,
        b"1709188200123456789",
        0,
        19,
        1709188200123456789,
    );
}

#[test]
fn sample_of_mysql_5_6(rt: HostRuntime) {
    is_named(&rt, FormName::Mysql56, "mysql-5.6", "240229 12:00:00");
    is_read(
        &rt,
        FormName::Mysql56,
        b"240229 12:00:00",
        0,
        15,
        1709204400000000000,
    );
}

#[test]
fn sample_of_hdfs(rt: HostRuntime) {
    is_named(&rt, FormName::Hdfs, "hdfs", "240229 120000");
    is_read(
        &rt,
        FormName::Hdfs,
        b"240229 120000",
        0,
        13,
        1709204400000000000,
    );
}

#[test]
fn sample_of_spark(rt: HostRuntime) {
    is_named(&rt, FormName::Spark, "spark", "24/02/29 12:00:00");
    is_read(
        &rt,
        FormName::Spark,
        b"24/02/29 12:00:00",
        0,
        17,
        1709204400000000000,
    );
}

#[test]
fn sample_of_syslog_year(rt: HostRuntime) {
    is_named(
        &rt,
        FormName::SyslogYear,
        "syslog-year",
        "Feb 29 12:00:00 2024",
    );
    is_read(
        &rt,
        FormName::SyslogYear,
        b"Feb 29 12:00:00 2024",
        0,
        20,
        1709204400000000000,
    );
}

#[test]
fn sample_of_modsecurity(rt: HostRuntime) {
    is_named(
        &rt,
        FormName::Modsecurity,
        "modsecurity",
        "29/Feb/2024:12:00:00.123456 +0530",
    );
    is_read(
        &rt,
        FormName::Modsecurity,
        b"29/Feb/2024:12:00:00.123456 +0530",
        0,
        33,
        1709188200123456000,
    );
}

#[test]
fn sample_of_php(rt: HostRuntime) {
    is_named(&rt, FormName::Php, "php", "29-Feb-2024 12:00:00 UTC");
    is_read(
        &rt,
        FormName::Php,
        b"29-Feb-2024 12:00:00 UTC",
        0,
        24,
        1709208000000000000,
    );
}

#[test]
fn sample_of_hour_offset(rt: HostRuntime) {
    is_named(
        &rt,
        FormName::HourOffset,
        "hour-offset",
        "2024-02-29 12:00:00.123 -03",
    );
    is_read(
        &rt,
        FormName::HourOffset,
        b"2024-02-29 12:00:00.123 -03",
        0,
        27,
        1709218800123000000,
    );
}

#[test]
fn sample_of_cisco_utc(rt: HostRuntime) {
    is_named(
        &rt,
        FormName::CiscoUtc,
        "cisco-utc",
        "*Feb 29 12:00:00.123 UTC",
    );
    is_read(
        &rt,
        FormName::CiscoUtc,
        b"*Feb 29 12:00:00.123 UTC",
        1,
        23,
        1709208000123000000,
    );
}

#[test]
fn sample_of_cisco(rt: HostRuntime) {
    is_named(&rt, FormName::Cisco, "cisco", "*Feb 29 12:00:00.123");
    is_read(
        &rt,
        FormName::Cisco,
        b"*Feb 29 12:00:00.123",
        1,
        19,
        1709204400123000000,
    );
}

#[test]
fn sample_of_asa(rt: HostRuntime) {
    is_named(&rt, FormName::Asa, "asa", "Feb 29 2024 12:00:00");
    is_read(
        &rt,
        FormName::Asa,
        b"Feb 29 2024 12:00:00",
        0,
        20,
        1709204400000000000,
    );
}

#[test]
fn sample_of_nxos(rt: HostRuntime) {
    is_named(&rt, FormName::Nxos, "nxos", "2024 Feb 29 12:00:00");
    is_read(
        &rt,
        FormName::Nxos,
        b"2024 Feb 29 12:00:00",
        0,
        20,
        1709204400000000000,
    );
}

#[test]
fn sample_of_django(rt: HostRuntime) {
    is_named(&rt, FormName::Django, "django", "29/Feb/2024 12:00:00");
    is_read(
        &rt,
        FormName::Django,
        b"29/Feb/2024 12:00:00",
        0,
        20,
        1709204400000000000,
    );
}

#[test]
fn sample_of_splunk(rt: HostRuntime) {
    is_named(
        &rt,
        FormName::Splunk,
        "splunk",
        "02-29-2024 12:00:00.123 +0530",
    );
    is_read(
        &rt,
        FormName::Splunk,
        b"02-29-2024 12:00:00.123 +0530",
        0,
        29,
        1709188200123000000,
    );
}

#[test]
fn sample_of_clickhouse(rt: HostRuntime) {
    is_named(
        &rt,
        FormName::Clickhouse,
        "clickhouse",
        "2024.02.29 12:00:00.123456",
    );
    is_read(
        &rt,
        FormName::Clickhouse,
        b"2024.02.29 12:00:00.123456",
        0,
        26,
        1709204400123456000,
    );
}

#[test]
fn sample_of_suricata(rt: HostRuntime) {
    is_named(
        &rt,
        FormName::Suricata,
        "suricata",
        "02/29/2024-12:00:00.123456",
    );
    is_read(
        &rt,
        FormName::Suricata,
        b"02/29/2024-12:00:00.123456",
        0,
        26,
        1709204400123456000,
    );
}

#[test]
fn sample_of_redis_2_8(rt: HostRuntime) {
    is_named(&rt, FormName::Redis28, "redis-2.8", "29 Feb 12:00:00.123");
    is_read(
        &rt,
        FormName::Redis28,
        b"29 Feb 12:00:00.123",
        0,
        19,
        1709204400123000000,
    );
}

#[test]
fn other_spellings(rt: HostRuntime) {
    is_read(
        &rt,
        FormName::Redis28,
        b"29 Feb 12:00:00",
        0,
        15,
        1709204400000000000,
    );
    is_read(
        &rt,
        FormName::Tomcat,
        b"29-FEB-2024 12:00:00.123",
        0,
        24,
        1709204400123000000,
    );
    is_read(
        &rt,
        FormName::Git,
        b"2024/02/29 12:00:00 +0530",
        0,
        25,
        1709188200000000000,
    );
}

#[test]
fn sample_of_glog(rt: HostRuntime) {
    is_named(&rt, FormName::Glog, "glog", "I20240229 12:00:00.123456");
    is_read(
        &rt,
        FormName::Glog,
        b"I20240229 12:00:00.123456",
        1,
        24,
        1709204400123456000,
    );
}
