"""From logs of a network to settings of a failure detector: what `suite/advise` does, idea by idea.

    reading     logs, line by line, to the probes that they tell of
    measuring   what the probes have: losses, bursts, stalls, delays
    counting    both detectors, counted straight from delays and losses
    settings    which settings are looked at, and what the log says of each
    fitting     the scenario and the network files
    sweeping    the same settings by fdstudy, over the network files
    judging     which rows may be believed, and which setting a wish gets
    telling     what is printed, and settings.csv
    drawing     the pictures
    page        page.html
    words       numbers and times, read and written
"""
