# a mode of six zeros takes seven bits
s/self.consume(6)?;/self.consume(7)?;/
