"""Sets and gets thresholds by pyipmi, on a board that loses one frame in twenty: `PYTHONPATH=clients/python pytest examples`, at the top."""
import pyipmi
from pyipmi.interfaces import create_interface
from served_board import board


def again(call, *given, **named):
    for _ in range(20):
        try:
            return call(*given, **named)
        except TimeoutError:
            pass


def test_thresholds_over_a_lossy_bus():
    with board("sample.toml", loss=5, seed=7, lan=True) as b:
        link = create_interface("rmcp", slave_address=0x81, host_target_address=0x20, keep_alive_interval=0)
        ipmi = pyipmi.create_connection(link)
        ipmi.session.set_session_type_rmcp("127.0.0.1", b.lan_port)
        ipmi.session.set_auth_type_user("admin", "")
        ipmi.target = pyipmi.Target(ipmb_address=0x20)
        ipmi.session.establish()
        for value in range(81, 91):
            again(ipmi.set_sensor_thresholds, 5, unc=value)
            assert again(ipmi.get_sensor_thresholds, 5)["unc"] == value
        assert b.links[0].counts["lose"] > 0
