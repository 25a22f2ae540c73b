let a = format_description!(version = 2, "[Day padding:zero][optional [ [ hour  padding:none ] ]]");
