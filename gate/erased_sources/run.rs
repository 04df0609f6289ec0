/// Answers the lines of standard input, as the program does.
pub fn run() -> std::process::ExitCode {
    use crate::proved::line_devices::devices::Device;
    let mut reader = Device::new(std::io::stdin().lock());
    let mut writer = Device::new(std::io::stdout().lock());
    match bench::bench(crate::proved::memory::Global, &mut reader, &mut writer) {
        Ok(()) => std::process::ExitCode::SUCCESS,
        Err(fault) => {
            eprintln!("{}", bench::fault_line(fault));
            std::process::ExitCode::FAILURE
        }
    }
}
